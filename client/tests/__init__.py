"""Tests of the client, against the program that AUD names, and AUD_SERVER where another one listens.

    AUD=crates/aud/out/aud python3 -m unittest discover -s client/tests -t client
"""
