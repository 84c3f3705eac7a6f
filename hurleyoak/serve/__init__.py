"""`pop serve`: one local web page on which an author works with a protocol.

The server (`web`) answers one person on one machine. What takes work is a job, a process of its own (`work`) that ends
with the page that asked for it. As all of the workbench it decides nothing: verdicts are the proved program's.
"""
