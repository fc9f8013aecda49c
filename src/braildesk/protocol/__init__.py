"""What goes to the program and comes back: requests, replies, values, codes and their sentences."""
