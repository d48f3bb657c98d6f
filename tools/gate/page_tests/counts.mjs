// Prints each difference between what the modules of the page count and what the reports say. Each line of the input is a play.
import { readFileSync } from "node:fs";

import { differences } from "../../people/paging/page/counts.js";

for (const line of readFileSync(0, "utf8").split("\n")) {
  const { name, facts, report } = JSON.parse(line);
  for (const difference of await differences(facts, report)) console.log(`${name}: ${difference}`);
}
