"""Load for minutes whose answers are all checked, while what the server holds is watched: `python3 -m tests.soak`"""
