"""Brings a market from a ledger: accounts and transactions in, dumps and scripts out, and back. Nothing here is proved."""
