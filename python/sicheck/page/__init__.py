"""A page for a browser that shows the findings of an answer beside its log: `python3 -m sicheck page`."""
