"""A gateway: many clients trade on one desk, and no answered row is lost. docs/SERVE.md says how to use it."""
