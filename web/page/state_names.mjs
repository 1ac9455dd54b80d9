// The states with their codes.

const TEXT = "01 Alabama,02 Alaska,04 Arizona,05 Arkansas,06 California,08 Colorado,09 Connecticut,"
  + "10 Delaware,12 Florida,13 Georgia,15 Hawaii,16 Idaho,17 Illinois,18 Indiana,19 Iowa,20 Kansas,"
  + "21 Kentucky,22 Louisiana,23 Maine,24 Maryland,25 Massachusetts,26 Michigan,27 Minnesota,"
  + "28 Mississippi,29 Missouri,30 Montana,31 Nebraska,32 Nevada,33 New Hampshire,34 New Jersey,"
  + "35 New Mexico,36 New York,37 North Carolina,38 North Dakota,39 Ohio,40 Oklahoma,41 Oregon,"
  + "42 Pennsylvania,44 Rhode Island,45 South Carolina,46 South Dakota,47 Tennessee,48 Texas,49 "
  + "Utah,50 Vermont,51 Virginia,53 Washington,54 West Virginia,55 Wisconsin,56 Wyoming";

/** The states by their two digits. */
export const STATES = new Map(TEXT.split(",").map((one) => (
  /** @type {[string, string]} */ ([one.slice(0, 2), one.slice(3)]))));

/**
 * Returns the name of a state, or "State" and its code.
 * @param {string} code
 */
export function stateName(code) {
  return STATES.get(code) ?? `State ${code}`;
}

// The chambers of a state whose names are known, by their seats.
/** @type {Map<string, [string, number][]>} */
const CHAMBERS = new Map([["37", [["Senate", 50], ["House", 120]]]]);

/**
 * Returns the names and seats of a state's chambers, as far as they are known.
 * @param {string} code
 */
export function chambersOf(code) {
  return CHAMBERS.get(code) ?? [];
}

/**
 * Returns the name of a chamber by its seats, or "chamber of" and its seats.
 * @param {string} code
 * @param {number} seats
 */
export function chamberName(code, seats) {
  return chambersOf(code).find(([, one]) => one === seats)?.[0] ?? `chamber of ${seats}`;
}
