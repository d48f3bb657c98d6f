"""The clauses that the checker asks, in its order, each in the words of docs/JOURNALS.md."""

CLAUSES = {
    "D15.1": "each command of the script is in the tree's list exactly once",
    "D9": "each answer is the one that the tree gives after the commands before it, and each command has as many counts as it needs",
    "D11": "each slice's list is a history of a cache: a hit is on a line that is there, a fill takes the way that it should, a look "
    "counts what is there, and no tag is stale",
    "D13.1": "an access uses the line of its address, under the group, RMID and mask that the tree of its epoch gives its task and CPU",
    "D13.2": "every other entry is one that its command owes there, of the right epoch",
    "D13.3": "an entry of an epoch follows the entries of all commands before that epoch",
    "D14": "each command has the counts of its looks",
    "D15.2": "each op has just the entries that it makes, in the slices where it makes them, and there are no others",
    "D15.3": "what comes first in a thread, or in an earlier phase, happened first",
    "D15.4": "in each slice, entries of what comes first stand first",
}
