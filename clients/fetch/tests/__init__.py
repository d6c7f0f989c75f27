"""Tests of the downloader. In the folder `clients`: python3 -m fetch.tests"""
