"""SVG documents: their paths, where groups and transforms put them, and what is not imported."""
