"""RMIDs that a command frees, and the counts that it needs for them (docs/FORMAT.md, "Monitor groups and limbo")."""
from bisect import insort

LINE_BYTES = 64


def counts_of(machine, rmids):
    """The domain and the RMID of each count that these RMIDs need."""
    return [(domain, rmid) for rmid in rmids for domain in range(machine.domains)]


def passing(state, rmids, counts):
    """Of these RMIDs, with their counts, those whose bytes pass the threshold in some domain."""
    each = state.machine.domains
    shares = (counts[at * each : (at + 1) * each] for at in range(len(rmids)))
    return [rmid for rmid, share in zip(rmids, shares) if max(share, default=0) * LINE_BYTES > state.threshold]


def free(state, rmids, counts):
    """Frees RMIDs: those that pass the threshold go to limbo."""
    for rmid in passing(state, rmids, counts):
        insort(state.limbo, rmid)
