"""What `bikhnoun statement` is made of: a page for an auditor about a file of journals, ready to be signed."""
