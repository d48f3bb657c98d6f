// What each way of a cache is used for: the letters of `bit_usage`, and how many masks have it.

export const MEANINGS = new Map([
  ["P", "locked"], ["E", "exclusive"], ["S", "shareable"], ["X", "shareable, and other hardware's"], ["H", "other hardware's"], ["0", "in no mask"],
]);

function has(groups, mode, domain, way) {
  return groups.some((group) => group.mode === mode && (group.waysIn(domain) >>> way) & 1);
}

// The letter of a way.
export function letterOf(groups, domain, way, hardware) {
  const byHardware = (hardware >>> way) & 1, shareable = has(groups, "shareable", domain, way);
  if (has(groups, "pseudo-locked", domain, way)) return "P";
  if (has(groups, "exclusive", domain, way)) return "E";
  if (byHardware) return shareable ? "X" : "H";
  return shareable ? "S" : "0";
}

// How many groups have a way in their masks.
export function sharersOf(groups, domain, way) {
  return groups.filter((group) => (group.waysIn(domain) >>> way) & 1).length;
}
