"""Writes the pages that are made of the source and are not kept in git; run it at the top.

docs/work/DEFINITIONS.md lists the public definitions, and docs/trust/LAWS.md has the laws. It fails where a public
definition has no comment, where the comment of a law has another form, and where a law is not listed just once.
"""
import sys

from tools.pages import definitions_index, law_documents

PAGES = [definitions_index.INDEX, law_documents.PAGE]


def main() -> int:
    """Writes them; the status to end with."""
    return max(definitions_index.main(), law_documents.main([]))


if __name__ == "__main__":
    sys.exit(main())
