"""What `make lists` writes: `python` for the Python client, `clients` for the tools and the front, `pages` for documents."""
