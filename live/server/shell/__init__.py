"""Take part in a road from the shell: what live/road uses."""
