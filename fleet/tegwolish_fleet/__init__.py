"""Scans trees of files with Tegwolish's `yara`, on many processors or many machines."""
