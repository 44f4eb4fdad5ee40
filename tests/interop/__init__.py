"""Clients and a proxy of others, each as its documentation uses it."""
