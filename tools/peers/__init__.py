"""What tools/check-peers is made of: each part asks other programs for values, and compares what the program answers with them."""
