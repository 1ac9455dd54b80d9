# Tests of named vectors, data frames and small problems, and of figures that others published.

source("setting.R")
input <- getNamespace("countygroups")

test("counties of a vector and of a data frame", {
  expect_equal(input$read_counties(path_people)$people, c(50, 50, 100, 200))
  frame <- data.frame(county = factor(names(path_people)), votes = c("1", "2", "3", "4"))
  found <- input$read_counties(frame, people = "votes", label = "county")
  expect_equal(found$label, names(path_people))
  expect_equal(found$people, 1:4)
  expect_equal(input$read_counties(frame, people = path_people, label = "county")$people[4], 200)
})

test("counties that can't be read", {
  frame <- data.frame(GEOID = c("a", "b"), people = c(1, NA))
  expect_refusal(input$read_counties(list(1)), "no data frame")
  expect_refusal(input$read_counties(frame), "county b are NA")
  expect_refusal(input$read_counties(frame["GEOID"]), "no column \"people\"")
  expect_refusal(input$read_counties(frame, people = "votes"), "no column \"votes\"")
  expect_refusal(input$read_counties(c(a = 1.5)), "1.5, which is no whole number")
  expect_refusal(input$read_counties(frame[0, ]), "no county")
})

test("codes", {
  expect_equal(input$codes_of(c("37001", "37003"))$code, c("37001", "37003"))
  expect_equal(input$codes_of(c(1001, 1003))$code, c("01001", "01003"))
  for (labels in list(c("Wake", "37001"), c("37001", "45001"), 1:2)) {
    expect_equal(input$codes_of(labels)$code, c("99001", "99002"))
  }
  expect_equal(input$legend_of(input$codes_of(c("Wake", "Lee")), "refused 99002"), "99002 is Lee")
  expect_refusal(input$codes_of(c("a", "a")), "a stands twice")
  expect_refusal(input$codes_of(1:257), "257 counties, and the program takes at most 256")
})

# The columns and texts of the Census Bureau's files, for the path of four counties.
test("columns that have a county's code", {
  geoids <- c("37001", "37003", "37005", "37007")
  codes <- function(frame) input$codes_of(input$read_counties(frame)$label)$code
  people <- unname(path_people)
  for (name in c("GEOID", "GEOID20", "GEOID10", "FIPS")) {
    expect_equal(codes(stats::setNames(data.frame(geoids, people), c(name, "people"))), geoids)
  }
  long <- data.frame(GEO_ID = paste0("0500000US", geoids), people = people)
  expect_equal(codes(long), geoids)
  expect_equal(input$read_counties(long)$label[1], "0500000US37001")
  two <- data.frame(STATEFP = "37", COUNTYFP = substr(geoids, 3, 5), people = people)
  expect_equal(codes(two), geoids)
  numbers <- data.frame(state = 37, county = c(1, 3, 5, 7), people = people)
  expect_equal(codes(numbers), geoids)
  numbers$county[2] <- 0
  expect_refusal(input$read_counties(numbers), "Row 2 is that of a state")
})

test("people with commas", {
  frame <- data.frame(GEOID = c("a", "b"), people = c("1,129,410", " 12 "))
  expect_equal(input$read_counties(frame)$people, c(1129410, 12))
  frame$people[1] <- "1,12"
  expect_refusal(input$read_counties(frame), "no whole number")
})

test("adjacency", {
  table <- input$read_counties(path_people)
  wanted <- cbind(1:3, 2:4)
  near <- list(Birch = c("Alder", "Cedar"), Dogwood = "Cedar")
  places <- structure(list(2L, c(1L, 3L), c(2L, 4L), 3L), class = "nb")
  for (given in list(path_pairs, as.data.frame(path_pairs), near, places)) {
    found <- input$adjacency_of(given, path_people, table)$listed
    expect_equal(found[order(found[, 1]), ], wanted)
  }
  changed <- input$adjacency_of(
    path_pairs, path_people, table, c("Dogwood", "Alder"), c("Cedar", "Birch")
  )
  expect_equal(nrow(input$pairs_that_count(changed)), 3)
  expect_equal(input$adjacency_words(changed), "3 pairs of a table of pairs; 1 added and 1 cut")
  refused <- function(given, words) {
    expect_refusal(input$adjacency_of(given, path_people, table), words)
  }
  refused(NULL, "no shapes")
  refused("edges", "have none")
  refused(cbind("Alder", "Elm"), "names Elm, which is no county")
  refused("no such file", "takes GEOIDs")
  refused(5, "says nothing")
  refused(list("x", "y"), "says nothing")
  refused(structure(list(0L), class = "nb"), "has 1 counties, not 4")
})

test("places from 0 and from 1, matrices, and files with tabs", {
  table <- input$read_counties(path_people)
  wanted <- cbind(1:3, 2:4)
  listed <- function(given, counties = path_people, of = table) {
    found <- input$adjacency_of(given, counties, of)$listed
    found[order(found[, 1]), ]
  }
  expect_equal(listed(list(1, c(0, 2), c(1, 3), 2)), wanted)
  expect_equal(listed(list(2, c(1, 3), c(2, 4), 3)), wanted)
  expect_refusal(listed(list(2, 3, 2, 1)), "from 0 or from 1")
  matrix <- matrix(0, 4, 4)
  matrix[wanted] <- 1
  expect_equal(listed(matrix), wanted)
  path <- tempfile()
  lines <- c("\"A\"\t37001\t\"A\"\t37001", "\t\t\"B\"\t37003", "\"B\"\t37003\t\"C\"\t37005")
  writeLines(c(lines, "\t\t\"A\"\t37001", "\"C\"\t37005\t\"D\"\t37007"), path)
  geoids <- stats::setNames(path_people, c("37001", "37003", "37005", "37007"))
  expect_equal(listed(path, geoids, input$read_counties(geoids)), wanted)
})

if (requireNamespace("igraph", quietly = TRUE)) {
  test("graphs of igraph", {
    table <- input$read_counties(path_people)
    named <- igraph::graph_from_edgelist(path_pairs, directed = FALSE)
    found <- input$adjacency_of(named, path_people, table)$listed
    expect_equal(found[order(found[, 1]), ], cbind(1:3, 2:4))
    places <- igraph::graph_from_edgelist(cbind(1:3, 2:4), directed = FALSE)
    expect_equal(input$adjacency_of(places, path_people, table)$listed, cbind(1:3, 2:4))
    few <- igraph::graph_from_edgelist(cbind(1, 2), directed = FALSE)
    expect_refusal(input$adjacency_of(few, path_people, table), "2 vertices without names")
  })
}

test("the border list of North Carolina", {
  known <- input$carried_geoids()
  if (!is.null(known)) {
    labels <- sort(unique(as.vector(known)))
    expect_equal(c(length(labels), nrow(input$carried_pairs(labels))), c(100, 244))
    table <- data.frame(label = labels, people = 1, name = labels)
    expect_equal(nrow(input$adjacency_of(NULL, NULL, table)$listed), 244)
    expect_equal(input$carried_pairs(c("37001", "45001")), NULL)
  }
})

test("files that aren't UTF-8", {
  # (a `~` becomes the byte f1, an n with a tilde in Latin-1)
  write_latin <- function(lines) {
    path <- tempfile()
    bytes <- charToRaw(paste0(lines, "\n", collapse = ""))
    bytes[bytes == charToRaw("~")] <- as.raw(0xf1)
    writeBin(bytes, path)
    path
  }
  geo <- matrix("", 2, 88)
  geo[, c(3, 5, 8, 13)] <- rep(c("050", "00", "7", "35"), each = 2)
  geo[, 15] <- c("013", "015")
  geo[, 88] <- c("Do~a Ana County", "Eddy County")
  segment <- write_latin("||||7|219561|~")
  census <- read_census(write_latin(apply(geo, 1, paste, collapse = "|")), segment)
  expect_equal(census$GEOID, c("35013", "35015"))
  expect_equal(census$people, c(219561, 219561))
  expect_equal(utf8ToInt(census$NAME[1])[1:4], c(utf8ToInt("Do"), 0xfffd, utf8ToInt("a")))
  borders <- write_latin(c("Do~a Ana County|35013|Eddy County|35015", "x|35013|y|35017"))
  found <- input$adjacency_of(borders, census, input$read_counties(census))
  expect_equal(found$listed, cbind(1, 2))
})

# The columns are those of the technical documentation of 2010.
test("census files of 2010, also packed by gzip", {
  line <- rep(" ", 500)
  put <- function(place, text) {
    line[seq(place, length.out = nchar(text))] <<- strsplit(text, "")[[1]]
  }
  put(9, "050")
  put(12, "00")
  put(19, "0000007")
  put(28, "37183")
  put(227, "Wake County")
  geo <- tempfile(fileext = ".gz")
  file <- gzfile(geo, "w")
  writeLines(paste(line, collapse = ""), file)
  close(file)
  segment <- tempfile()
  writeLines("PLST,NC,000,01,0000007,900993,900993", segment)
  found <- read_census(geo, segment)
  expect_equal(unlist(found[1, ]), c("37183", "Wake County", "900993"))
})

# The inputs that users hold, by the rows of the table in tools/test_inputs.py. Counties and their
# people are Alamance and Wake of the census of 2020.
two <- c("37001" = 171415, "37183" = 1129410)
stored <- function(lines) {
  path <- tempfile()
  writeLines(lines, path)
  path
}
packed <- function(text, open) {
  path <- tempfile()
  file <- open(path, "w")
  writeLines(text, file)
  close(file)
  path
}
people_in <- function(frame, ...) input$read_counties(frame, ...)$people
codes_in <- function(frame, ...) input$codes_of(input$read_counties(frame, ...)$label)$code
borders_in <- function(path) {
  input$adjacency_of(path, two, input$read_counties(two))$listed
}
geo_2020 <- vapply(names(two), function(code) {
  line <- character(88)
  line[c(3, 5, 8, 13, 15)] <- c("050", "00", code, "37", substr(code, 3, 5))
  paste(line, collapse = "|")
}, "")
segment_2020 <- paste0("PLST|NC|000|01|", names(two), "|", two)

test("inputs: PL 94-171 of 2020, unpacked", {
  found <- read_census(stored(geo_2020), stored(segment_2020))
  expect_equal(c(found$GEOID, found$people), c(names(two), unname(two)))
})

test("inputs: PL 94-171 of 2020, zip or gzip", {
  found <- read_census(packed(geo_2020, gzfile), packed(segment_2020, gzfile))
  expect_equal(found$people, unname(two))
  zip <- tempfile()
  writeBin(as.raw(c(0x50, 0x4b, 3, 4, 20, 0)), zip)
  expect_refusal(read_census(zip, zip), "is a zip archive: unpack it by utils::unzip")
})

test("inputs: PL 94-171 of 2010", {
  line <- paste0("PLST  NC", "050", "00", strrep(" ", 5), "0000007", strrep(" ", 2), "37183")
  line <- paste0(formatC(line, width = -226), formatC("Wake County", width = -274))
  found <- read_census(stored(line), stored("PLST,NC,000,01,0000007,900993,900993"))
  expect_equal(unlist(found[1, ]), c("37183", "Wake County", "900993"))
})

# Runs code over files of JSON, or wants it to be refused with what to do without jsonlite.
with_json <- function(paths, read, code) {
  if (requireNamespace("jsonlite", quietly = TRUE)) return(force(code))
  for (path in paths) expect_refusal(read(path), "is JSON, which the package jsonlite reads")
}

test("inputs: JSON of the Census Bureau's API", {
  frame <- data.frame(P1_001N = as.character(two), state = "37", county = c("001", "183"))
  expect_equal(people_in(frame, people = "P1_001N"), unname(two))
  expect_equal(codes_in(frame, people = "P1_001N"), names(two))
  rows <- c("[[\"NAME\",\"P1_001N\",\"state\",\"county\"],",
    "[\"Alamance\",\"171415\",\"37\",\"001\"],", "[\"Wake\",1129410,\"37\",\"183\"]]"
  )
  path <- stored(rows)
  with_json(path, input$read_counties, {
    expect_equal(people_in(path, people = "P1_001N"), unname(two))
    expect_equal(codes_in(path, people = "P1_001N"), names(two))
    expect_equal(input$read_counties(path, people = "P1_001N")$name, c("Alamance", "Wake"))
    expect_refusal(input$read_counties(stored(rows[1:2])), "ask for it again, or store it again")
    expect_refusal(input$read_counties(stored("{\"type\": 1}")), "GeoJSON is read by sf::st_read")
    expect_refusal(input$read_counties(stored("[[\"a\"],[1,2]]")), "neither a dual graph nor rows")
    expect_refusal(borders_in(path), "is JSON without the nodes and the edges of a graph")
  })
})

test("inputs: CSV of data.census.gov, two headings", {
  codes <- c("Geography", paste0("0500000US", names(two)))
  frame <- data.frame(GEO_ID = codes, P1_001N = c(" !!Total:", two))
  expect_refusal(people_in(frame, people = "P1_001N"), "second heading, leave that row out")
  expect_equal(codes_in(frame[-1, ], people = "P1_001N"), names(two))
})

test("inputs: Population Estimates", {
  frame <- data.frame(STATE = 37, COUNTY = c(0, 1, 183), POPESTIMATE2024 = c(11046024, two))
  read <- function(rows) codes_in(rows, people = "POPESTIMATE2024")
  expect_refusal(read(frame), "is that of a state, not of a county: leave it out")
  expect_equal(read(frame[-1, ]), names(two))
})

test("inputs: projections by counties' names", {
  frame <- data.frame(County = c("Alamance", "Wake"), July = c("171,415", "1,129,410"))
  expect_equal(people_in(frame, people = "July", label = "County"), unname(two))
})

test("inputs: CSV of codes and people", {
  path <- stored(c("county,people,name", "37001,171415,Alamance County", "37183,1129410,Wake"))
  frame <- utils::read.csv(path)
  expect_equal(codes_in(frame, label = "county"), names(two))
  expect_equal(people_in(frame), unname(two))
})

test("inputs: CSV of NHGIS", {
  frame <- data.frame(GEOID = paste0("0500000US", names(two)), U7B001 = two)
  expect_equal(people_in(frame, people = "U7B001"), unname(two))
  expect_equal(codes_in(frame, people = "U7B001"), names(two))
})

test("inputs: shapefile or GeoPackage", {
  for (path in c("counties.shp", "counties.gpkg")) {
    expect_refusal(input$read_counties(path), "is a path, and no counties: read it by sf::st_read")
  }
})

test("inputs: county adjacency file of 2023", {
  lines <- c("County Name|County GEOID|Neighbor Name|Neighbor GEOID|Length")
  path <- stored(c(lines, "Alamance County, NC|37001|Wake County, NC|37183|1"))
  expect_equal(borders_in(path), cbind(1, 2))
})

test("inputs: county adjacency file with tabs", {
  line <- "\"Alamance County, NC\"\t37001\t\"Alamance County, NC\"\t37001"
  expect_equal(borders_in(stored(c(line, "\t\t\"Wake County, NC\"\t37183"))), cbind(1, 2))
})

test("inputs: county adjacency file with commas", {
  path <- stored("Alamance County,37001,Wake County,37183,1")
  told <- "has a county's GEOID as the second field, at pipes or tabs: put these there"
  expect_refusal(borders_in(path), told)
})

# The nodes are in another order than `two`, and one is in another state.
test("inputs: dual graph in JSON", {
  nodes <- paste0("{\"directed\": false, \"nodes\": [",
    "{\"GEOID20\": \"37183\", \"TOTPOP\": 1129410, \"boundary\": true, \"id\": 4}, ",
    "{\"GEOID20\": \"37001\", \"TOTPOP\": 171415, \"boundary\": null, \"id\": \"x\"}, ",
    "{\"GEOID20\": \"45001\", \"TOTPOP\": 7, \"boundary\": [], \"id\": 6}], "
  )
  near <- "\"adjacency\": [[{\"id\": \"x\"}, {\"id\": 6, \"w\": 2}], [{\"id\": 4}], [{\"id\": 4}]]}"
  ends <- "[{\"source\": 4, \"target\": \"x\"}, {\"source\": 6, \"target\": 4}]}"
  forms <- c(near, paste0("\"links\": ", ends), paste0("\"edges\": ", ends))
  paths <- vapply(forms, function(form) stored(paste0(nodes, form)), "")
  with_json(paths, borders_in, for (path in paths) {
    expect_equal(suppressWarnings(borders_in(path)), cbind(1, 2))
    graph <- read_dual_graph(path)
    expect_equal(graph$nodes$TOTPOP, c(1129410, 171415, 7))
    expect_equal(row.names(graph$nodes), c("4", "x", "6"))
    expect_equal(lapply(graph$adjacency, sort), list(2:3, 1, 1))
    expect_equal(people_in(path, people = "TOTPOP"), c(1129410, 171415, 7))
    if (has_program) {
      found <- suppressWarnings(solved(path, 5, people = "TOTPOP"))
      expect_equal(nrow(found$adjacency$pairs), 2)
      expect_equal(seat_sizes(path, 5, people = "TOTPOP")$label, c("37183", "37001", "45001"))
    }
  })
  twice <- stored("{\"nodes\": [{\"id\": 1}, {\"id\": 1}], \"links\": []}")
  other <- stored("{\"nodes\": [{\"id\": 1}], \"links\": [{\"source\": 1, \"target\": 2}]}")
  alone <- stored("{\"nodes\": [{\"id\": 1}], \"adjacency\": [[]]}")
  with_json(c(twice, other, alone), borders_in, {
    expect_refusal(borders_in(twice), "Node 1 stands twice")
    expect_refusal(borders_in(other), "has an edge of a node that it hasn't: store it again")
    expect_refusal(borders_in(alone), "is one of the counties, such as 37001: name the nodes as")
  })
  expect_refusal(read_dual_graph("no.json"), "is no file of JSON: store the graph")
})

# An answer as far as `audit_plan` and `judge_groups` read it before they refuse something.
unasked <- list(problem = list(table = data.frame(label = names(two), people = two)))
audited <- function(plan) audit_plan(unasked, plan, rep(names(two), 2), rep(two / 2, 2))
in_order <- "give its districts in the order of `counties`, as "
blocks_of_csv <- "plan$District[match(blocks$GEOID20, plan$GEOID20)] of plan <- read.csv(path"

test("inputs: plan by blocks", {
  path <- stored(c("GEOID20,District", "370010201001000,1", "371830501001000,2"))
  expect_refusal(audited(path), paste0(in_order, blocks_of_csv))
  expect_refusal(audited("nowhere.csv"), paste0(in_order, blocks_of_csv))
  expect_refusal(audited(utils::read.csv(path)), "`plan` is a table: give its districts")
})

test("inputs: plan by precincts", {
  if (has_program) {
    answer <- suppressWarnings(solved(two, 2, adjacency = cbind("37001", "37183")))
    plan <- c("1", "2", "1", "2")
    people <- c(100000, 71415, 550412, 578998)
    counties <- rep(names(two), each = 2)
    expect_equal(nrow(audit_plan(answer, plan, counties, people)), 0)
    wrong <- audit_plan(answer, c("1", "1", "1", "2"), counties, people)
    expect_equal(wrong$kind[1], "DistrictSize")
  }
  expect_refusal(audited(c("1", "2")), "have a value for each precinct, and differ")
})

test("inputs: grouping by counties", {
  path <- stored(c("GEOID20,District", "37001,1", "37183,1"))
  told <- "`groups` is no data frame with the column `seats` and the list column `counties`: give"
  expect_refusal(judge_groups(unasked, path), told)
  expect_refusal(judge_groups(unasked, utils::read.csv(path)), told)
})

test("inputs: groups drawn by blocks", {
  groups <- data.frame(seats = 2)
  groups$counties <- list("370010201001000")
  codes <- input$codes_of(names(two))
  told <- "names 370010201001000, which is no county: a group has labels such as 37001"
  expect_refusal(input$grouping_lines(groups, codes), told)
})

test("inputs: JSON of Districtr", {
  path <- stored("{\"assignment\": {\"370010201001000\": 0}}")
  told <- "unlist(plan$assignment)[blocks$GEOID20] of plan <- jsonlite::fromJSON(path)"
  expect_refusal(audited(path), paste0(in_order, told))
  expect_refusal(audited(list(assignment = list("1" = 0))), "`plan` is a list: give its districts")
  with_json(path, input$read_counties, {
    expect_refusal(input$read_counties(path), "What Districtr stores is a plan, for `audit_plan`")
    expect_refusal(borders_in(path), "What Districtr stores is a plan, for `audit_plan`")
  })
})

test("inputs: CSV of Districtr", {
  path <- stored(c("id-northcarolina-blocks,assignment", "370010201001000,1"))
  expect_refusal(audited(path), paste0(in_order, blocks_of_csv))
})

test("inputs: block assignment files in a zip", {
  zip <- tempfile()
  writeBin(as.raw(c(0x50, 0x4b, 3, 4, 20, 0)), zip)
  expect_refusal(audited(zip), "is a zip archive: unpack it by utils::unzip, read the file of the")
})

test("inputs: xz, bzip2 or Excel", {
  for (path in c("table.csv.xz", "table.csv.bz2", "table.xlsx")) {
    expect_refusal(input$read_counties(path), "is a path, and no counties")
  }
})

test("tolerance, seats and withdrawn sets", {
  expect_equal(input$tolerance_of(NULL), c(1, 20))
  expect_equal(input$tolerance_of(0.05), c(1, 20))
  expect_equal(input$tolerance_of(1 / 3), c(1, 3))
  expect_refusal(input$tolerance_of(-1), "tolerance")
  expect_refusal(input$tolerance_of(pi), "has to be 0 to 0.5")
  expect_refusal(input$tolerance_of(0.12345), "no fraction")
  for (given in list(0.04, "4%", "4.0%", "0.04", "1/25", "4/100")) {
    expect_equal(input$tolerance_of(given), c(1, 25))
  }
  expect_equal(input$tolerance_of("4.5%"), c(9, 200))
  expect_equal(input$tolerance_of("0"), c(0, 1))
  expect_equal(input$tolerance_of("50%"), c(1, 2))
  wrong <- list("", "4 %", "-4%", "1/3%", "4%%", "%", "four", "0x1", NA_character_, c("4%", "5%"))
  for (text in wrong) {
    expect_refusal(input$tolerance_of(text), "no percentage, decimal or fraction")
  }
  for (text in c("51%", "2/3", "1/0", "4")) {
    expect_refusal(input$tolerance_of(text), "has to be 0 to 0.5")
  }
  for (text in c("0.05%", "0/0", "33.33%", "10.010010010%", "1/1001")) {
    expect_refusal(input$tolerance_of(text), "no fraction of at most 500")
  }
  table <- input$read_counties(path_people)
  expect_refusal(input$withdrawn_set("Alder", table), "a list of its counties")
  expect_refusal(input$withdrawn_set(list("Elm", 1), table), "names Elm")
  expect_refusal(input$withdrawn_set(list("Alder", 0.5), table), "no whole number")
})

test("no program", {
  expect_refusal(find_program("/nowhere/x"), "no program /nowhere/x", "countygroups_no_program")
})

if (has_program) {
  test("the path of four counties", {
    answer <- solved(path_people, 4, adjacency = path_pairs)
    expect_equal(answer$counts, c(2, 1))
    expect_equal(sets_of(answer$groups), c("Alder Birch", "Cedar", "Dogwood"))
    expect_equal(check_certificate(answer)$outcome, "best")
    expect_equal(best_groupings(answer)$number, 1)
    expect_equal(as.data.frame(answer)$SEATS, c(1, 1, 1, 2))
    printed <- capture.output(print(answer))
    expect_equal(printed[6], "3: 1 seat, 100 people: Alder, Birch")
    expect_equal(any(grepl("without a neighbour", printed)), FALSE)
    expect_refusal(as_sf(answer), "no shapes")
    expect_refusal(best_grouping(answer, 2), "`number` is 2, and has to be 1 to 1")
    expect_equal(grouping_number(answer, answer$groups), 1)
    expect_equal(c(answer$ideal, answer$district_bounds), c(100, 95, 105))
  })

  test("margins, tidy, and a summary of the list", {
    answer <- solved(path_people, 4, adjacency = path_pairs)
    expect_equal(group_margins(answer)$fewer, 5 * answer$groups$seats)
    expect_equal(group_margins(answer)$more, 5 * answer$groups$seats)
    if (requireNamespace("generics", quietly = TRUE)) {
      expect_equal(generics::tidy(answer), as.data.frame(answer))
    }
    printed <- capture.output(print(best_groupings(answer)))
    expect_equal(printed, c("1 best grouping", "3 groups of all of them"))
  })

  test("all best groupings by one call", {
    program <- find_program()
    if (.Platform$OS.type == "unix") {
      calls <- tempfile()
      counting <- tempfile()
      run <- paste(shQuote(program), collapse = " ")
      writeLines(c("#!/bin/sh", paste0("echo >>", calls), paste("exec", run, "\"$@\"")), counting)
      Sys.chmod(counting)
      ring <- cbind(c("A", "B", "C", "D"), c("B", "C", "D", "A"))
      people <- c(A = 50, B = 50, C = 50, D = 50)
      answer <- solved(people, 2, adjacency = ring, program = counting)
      expect_equal(length(best_groupings(answer)$groupings), 2)
      expect_equal(length(readLines(calls)), 2)
    }
  })

  test("withdrawn sets", {
    answer <- solved(path_people, 4, adjacency = path_pairs, withdrawn = list(list("Dogwood", 2)))
    expect_equal(as.data.frame(answer)$GROUP, c("2", "2", "1", "W1"))
    all <- solved(c(A = 9), 1, adjacency = cbind("A", "A"), withdrawn = list(list("A", 1)))
    expect_equal(c(all$outcome, nrow(all$groups)), c("best", 0))
    expect_equal(best_groupings(all)$number, 1)
    expect_equal(as.data.frame(all)$GROUP, "W1")
  })

  test("a tolerance of ten percent", {
    people <- c(A = 94, B = 106)
    expect_equal(solved(people, 2, adjacency = cbind("A", "B"))$counts, c(0, 1))
    expect_equal(solved(people, 2, adjacency = cbind("A", "B"), tolerance = 0.1)$counts, 2)
  })

  test("a ring with two best groupings", {
    ring <- cbind(c("A", "B", "C", "D"), c("B", "C", "D", "A"))
    answer <- solved(c(A = 50, B = 50, C = 50, D = 50), 2, adjacency = ring)
    best <- best_groupings(answer)
    expect_equal(c(best$number, nrow(best$shared), length(best$regions)), c(2, 0, 1))
    expect_equal(length(best$regions[[1]]$alternatives), 2)
    expect_equal(sets_of(best_grouping(answer, 1)), c("A B", "C D"))
    expect_equal(sets_of(best_grouping(answer, 2)), c("A D", "B C"))
  })

  test("warnings", {
    expect_warning <- function(code, words) {
      found <- tryCatch(code, countygroups_warning = conditionMessage)
      if (!is.character(found) || !grepl(words, found)) stop("wanted a warning: ", words)
    }
    sets <- list(list("Dogwood", 1))
    told <- "^withdrawn: the set of 1 seat .*99004 is Dogwood"
    expect_warning(solved(path_people, 4, adjacency = path_pairs, withdrawn = sets), told)
    apart <- cbind("A", "A")
    expect_warning(solved(c(A = 50, B = 50), 1, adjacency = apart), "No two of the 2 counties")
  })

  # Returns a folder with a program that doesn't end. It writes its process to `started.txt`.
  endless_program <- function() {
    folder <- tempfile()
    dir.create(file.path(folder, "room"), recursive = TRUE)
    program <- file.path(folder, "program")
    lines <- c("#!/bin/sh", "echo $$ >../part", "mv ../part ../started.txt", "exec sleep 600")
    writeLines(lines, program)
    Sys.chmod(program)
    folder
  }

  # Waits until a call gives true. Stops after 20 seconds.
  wait_until <- function(is_so) {
    for (turn in 1:400) {
      if (is_so()) return(invisible())
      Sys.sleep(0.05)
    }
    stop("it took 20 seconds")
  }

  # Waits until the endless program of a folder is gone, and its room, too.
  expect_nothing_left <- function(folder) {
    process <- readLines(file.path(folder, "started.txt"))
    is_there <- function(...) system2("kill", c("-0", process), stderr = FALSE) == 0
    wait_until(function() !suppressWarnings(is_there()) && !dir.exists(file.path(folder, "room")))
  }

  test("time that is over leaves no program", {
    folder <- endless_program()
    program <- file.path(folder, "program")
    call <- function() input$run_in(file.path(folder, "room"), program, character(), FALSE, 0.5)
    expect_refusal(call(), "no answer after 0.5 seconds", "countygroups_time_limit")
    expect_nothing_left(folder)
  })

  test("R that is killed or interrupted leaves no program", {
    for (signal in c("-KILL", "-TERM", "-INT")) {
      folder <- endless_program()
      code <- paste0(
        "setwd('", folder, "'); cat(Sys.getpid(), file = 'caller.txt');",
        "countygroups:::run_in('", folder, "/room', '", folder, "/program', 'x', FALSE)"
      )
      # (one that is started in the background may have been told to ignore interrupts)
      words <- c("--default-signal=INT", file.path(R.home("bin"), "Rscript"), "-e", shQuote(code))
      system2("env", words, wait = FALSE, stdout = FALSE, stderr = FALSE)
      wait_until(function() file.exists(file.path(folder, "started.txt")))
      system2("kill", c(signal, readLines(file.path(folder, "caller.txt"), warn = FALSE)))
      expect_nothing_left(folder)
    }
  })

  test("seats by county, the judge, and an audit", {
    sizes <- seat_sizes(path_people, 4)
    expect_equal(sizes$least_seats, c(NA, NA, 1, 2))
    answer <- solved(path_people, 4, adjacency = path_pairs)
    verdict <- judge_groups(answer, answer$groups)
    expect_equal(verdict$outcome, "best")
    expect_equal(verdict$greater, integer())
    lesser <- data.frame(seats = c(2, 2))
    lesser$counties <- list(c("Alder", "Birch", "Cedar"), "Dogwood")
    verdict <- judge_groups(answer, lesser)
    expect_equal(verdict$outcome, "lawful")
    # (the best grouping has two groups of one county, and one of two)
    expect_equal(verdict$greater, c(2, 1))
    lesser$seats <- c(3, 2)
    expect_equal(startsWith(judge_groups(answer, lesser)$fault, "OutOfWindow"), TRUE)
    plan <- c(p = "x", q = "x", r = "y", s = "z", t = "w")
    counties <- c("Alder", "Birch", "Cedar", "Dogwood", "Dogwood")
    people <- c(50, 50, 100, 100, 100)
    expect_equal(nrow(audit_plan(answer, plan, counties, people)), 0)
    expect_equal(nrow(audit_plan(answer, factor(plan), counties, people)), 0)
    plan["r"] <- "x"
    found <- audit_plan(answer, plan, counties, people)
    expect_equal(sort(unique(found$kind)), c("Crosses", "DistrictSize"))
    expect_equal(found$told[found$kind == "DistrictSize"], "x people 200")
    plan["t"] <- NA
    found <- audit_plan(answer, plan, counties, people)
    expect_equal(found$told[found$kind == "Unassigned"], "t")
    expect_refusal(audit_plan(answer, plan, counties, people + 1), "Alder have 51 people")
  })

  test("no lawful grouping, and steps that run out", {
    none <- suppressWarnings(solved(c(A = 50, B = 50), 1, adjacency = cbind("A", "A")))
    expect_equal(none$outcome, "impossible")
    expect_equal(capture.output(print(none))[3], "without a neighbour: A, B")
    expect_equal(check_certificate(none)$outcome, "impossible")
    expect_refusal(as.data.frame(none), "no grouping", "countygroups_no_grouping")
    expect_refusal(best_groupings(none), "impossible", "countygroups_no_grouping")
    open <- solved(path_people, 4, adjacency = path_pairs, steps = 1)
    expect_equal(open$outcome, "open")
    expect_refusal(check_certificate(open), "ran out", "countygroups_no_grouping")
  })

  test("the program's own words", {
    twice <- list(list("Alder", 1), list("Alder", 1))
    call <- function(...) solved(path_people, ..., adjacency = path_pairs)
    kind <- "countygroups_program_error"
    found <- expect_refusal(call(4, withdrawn = twice), "99001 is Alder", kind)
    expect_equal(found$status, 4)
    expect_refusal(call(4, tolerance = 0.75), "has to be 0 to 0.5; 0.05 is five percent")
    expect_refusal(call(0), "`seats` is 0, and has to be 1 to 1000")
    expect_refusal(call(4, steps = 0.5), "`steps` is no whole number")
    expect_equal(call(4, steps = 1e6)$outcome, "best")
    other <- call(5)
    expect_refusal(
      check_certificate(other, call(4)$certificate), "no TargetFault",
      "countygroups_certificate_error"
    )
  })

  test("a saved folder", {
    folder <- tempfile()
    answer <- solved(path_people, 4, adjacency = path_pairs, withdrawn = list(list("Dogwood", 2)))
    save_groups(answer, folder)
    words <- strsplit(tail(readLines(file.path(folder, "README.txt")), 1), " ")[[1]][-1]
    here <- setwd(folder)
    program <- find_program()
    printed <- system2(program[1], c(program[-1], words), stdout = TRUE)
    grouping <- readLines("grouping.txt")
    setwd(here)
    expect_equal(tail(words, 2), c("--budget", input$unbounded))
    expect_equal("answer best" %in% printed, TRUE)
    expect_equal(grouping, c("1|99003", "1|99001|99002"))
  })
}

if (has_program && nzchar(data)) {
  judge <- function(seats, counts, number, name) {
    census <- read_census(data_file("nc2020geo.pl"), data_file("nc000012020.pl"))
    answer <- solved(census, seats, adjacency = data_file("county_borders.txt"))
    best <- best_groupings(answer)
    expect_equal(answer$counts, counts)
    found <- c(best$number, nrow(best$shared), sum(best$shared$most_seats))
    expect_equal(found, published[[as.character(seats)]])
    expect_equal(sum(answer$groups$seats), seats)
    expect_equal(length(best$groupings), best$number)
    expect_equal(sets_of(best$groupings[[number]]), enacted(name))
  }

  test("the Senate of 2020", judge(50, senate_counts, 6, "senate"))
  test("the House of 2020", judge(120, house_counts, 7, "house"))
}
