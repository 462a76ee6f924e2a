"""Campaigns: a plan tried with many seeds and settings, by many processes, and what came of it in one file. hunt/seeds is the
command; each module here has one part of it, and none needs the command."""
