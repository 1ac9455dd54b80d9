"""The version of this package, from which its releases take it."""

VERSION = "1.0.0"
