"""The modules of tools/check_docs.py."""
