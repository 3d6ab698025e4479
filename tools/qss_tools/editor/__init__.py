"""The language server for editors, and what it knows about a text that is being written."""
