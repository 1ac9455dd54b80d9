# Tests of sf objects.

source("setting.R")
input <- getNamespace("countygroups")

# Returns a square of side 1.
square <- function(x, y) {
  sf::st_polygon(list(cbind(c(x, x + 1, x + 1, x, x), c(y, y, y + 1, y + 1, y))))
}

# Returns pairs in their order.
ordered <- function(pairs) {
  pairs[order(pairs[, 1], pairs[, 2]), , drop = FALSE]
}

if (requireNamespace("sf", quietly = TRUE)) {
  test("squares", {
    shapes <- sf::st_sfc(square(0, 0), square(0, 1), square(1, 0), square(1, 1))
    found <- input$contacts_of(shapes)
    expect_equal(ordered(found$edges), rbind(c(1, 2), c(1, 3), c(2, 4), c(3, 4)))
    expect_equal(ordered(found$points), rbind(c(1, 4), c(2, 3)))
  })

  test("what shapes don't show", {
    shapes <- sf::st_sfc(square(0, 0), square(0, 1), square(1, 0), square(1, 1))
    frame <- sf::st_sf(people = 1, NAME = letters[1:4], geometry = shapes)
    table <- input$read_counties(frame)
    told <- tryCatch(
      input$adjacency_of(NULL, frame, table),
      countygroups_warning = conditionMessage
    )
    expect_equal(grepl("over water, .*: a and d, b and c", told), TRUE)
  })

  test("a shape that crosses itself, and one that is none", {
    crossed <- sf::st_polygon(list(cbind(c(0, 1, 1, 0, 0), c(0, 1, 0, 1, 0))))
    found <- input$contacts_of(sf::st_sfc(crossed, square(1, 0), square(5, 5)))
    expect_equal(found$edges, cbind(1, 2))
    expect_equal(nrow(found$points), 0)
    wrong <- sf::st_sfc(square(0, 0), sf::st_point(c(0, 0)))
    expect_refusal(input$contacts_of(wrong), "Row 2 of the table has no polygon")
  })
}

if (requireNamespace("sf", quietly = TRUE) && nzchar(data)) {
  census <- read_census(data_file("nc2020geo.pl"), data_file("nc000012020.pl"))
  counties <- sf::st_read(data_file("county_outlines.geojson"), quiet = TRUE)
  counties <- merge(counties, census[c("GEOID", "people")])

  test("the outlines are valid, on the sphere and in the plane", {
    expect_equal(all(sf::st_is_valid(counties)), TRUE)
    plane <- sf::st_set_crs(sf::st_geometry(counties), NA)
    expect_equal(all(sf::st_is_valid(plane)), TRUE)
    expect_equal(length(sf::st_touches(counties)), 100)
  })

  # The border list's pairs were found by corners in common, and not by sf.
  test("the outlines of North Carolina", {
    table <- input$read_counties(counties)
    pairs <- function(...) input$adjacency_of(..., counties = counties, table = table)
    listed <- pairs(data_file("county_borders.txt"))
    edges <- pairs("edges", added = pairs_without_edge())
    expect_equal(nrow(edges$listed), 227)
    expect_equal(ordered(input$pairs_that_count(edges)), ordered(listed$listed))
    quietly <- function(...) suppressWarnings(pairs(...))
    expect_equal(nrow(quietly("points")$listed), 227 + 19)
    shapes <- sf::st_make_valid(sf::st_set_crs(sf::st_geometry(counties), NA))
    expect_equal(nrow(quietly(sf::st_intersects(shapes))$listed), 227 + 19)
    told <- tryCatch(pairs("edges"), countygroups_warning = conditionMessage)
    expect_equal(grepl("lack 17 \\(.*Dare and Tyrrell.* add 0 \\(none", told), TRUE)
  })

  if (has_program) {
    test("the Senate by its outlines", {
      edges <- solved(counties, 50, adjacency = "edges", added = pairs_without_edge())
      answer <- solved(counties, seats = 50)
      expect_equal(edges$counts, senate_counts)
      expect_equal(answer$counts, senate_counts)
      expect_equal(nrow(answer$adjacency$pairs), 244)
      counties$GROUP <- "mine"
      own <- as_sf(solved(counties, seats = 50))
      expect_equal(unique(own$GROUP), "mine")
      expect_equal(sort(unique(own$COUNTYGROUPS_GROUP)), 1:26)
      expect_equal(best_groupings(answer)$number, published[["50"]][1])
      frame <- as_sf(answer, number = 6)
      found <- tapply(frame$GEOID, frame$GROUP, paste, collapse = " ")
      expect_equal(sort(as.vector(found)), enacted("senate"))
      near <- answer$adjacency$pairs
      place <- function(labels) match(labels, frame$GEOID)
      is_border <- frame$GROUP[place(near$county)] != frame$GROUP[place(near$neighbour)]
      is_same <- frame$COLOUR[place(near$county)] == frame$COLOUR[place(near$neighbour)]
      expect_equal(any(is_border & is_same), FALSE)
      shapes <- sf::st_geometry(counties)
      expect_equal(as_sf(answer, shapes = shapes)$SEATS, as_sf(answer)$SEATS)
      expect_refusal(as_sf(answer, shapes = shapes[1:3]), "3 shapes for 100 counties")
    })

    test("a map", {
      picture <- tempfile(fileext = ".png")
      grDevices::png(picture, 1100, 520)
      plot(solved(counties, seats = 50))
      grDevices::dev.off()
      expect_equal(file.size(picture) > 20000, TRUE)
    })
  }
}
