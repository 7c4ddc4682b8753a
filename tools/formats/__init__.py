"""The formats of docs/FORMATS.md, read for the tools of this folder. Nothing here is a part of the proved program."""
