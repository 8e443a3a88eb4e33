"""What tsp-demo shows: three hosts whose time runs fast, what is seen of them, and how that is drawn."""
