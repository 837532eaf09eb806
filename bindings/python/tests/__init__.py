"""Tests of the module. bindings/python/test runs them; in bindings/python, python3 -m unittest discover -t . tests"""
