"""Run the program, in fair turns, and let it simulate roads: send it the edits that change a road, and read its rows."""
