"""What `bikhnoun check` is made of: a reading of journals by docs/JOURNALS.md, and where in them a clause is false.

Nothing here is proved. The verdict is the proved checker's; this package says where the clause that it names is false, and why.
"""
