"""Inputs that AFL++ makes, each path of which the model judges: `python3 -m tests.fuzz`"""
