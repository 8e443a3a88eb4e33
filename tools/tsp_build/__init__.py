"""What proves and builds the program for ./tsp, and says how far that is."""
