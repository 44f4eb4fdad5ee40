"""What tests of several kinds use: the model, servers, connections, runs, and how what they find is told."""
