"""The subjects. Each module has the cases of one; `tests/README.md` says which, and where a new case goes."""
