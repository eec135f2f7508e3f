"""Holds README.md, CHANGELOG.md, CONTRIBUTING.md, docs/*.md and docs/manual/*.md to the repository: no link, path or name leads to what is not there."""
