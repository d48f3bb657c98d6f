"""How the edits that the gate leaves out are tried."""
