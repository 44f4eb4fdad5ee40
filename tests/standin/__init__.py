"""The tests over sockets, of a stand-in for the server that is wrong in a known way each time."""
