"""From Rust to a verdict: what cargo-blade needs beside the steps of blade-cc. Licence: public domain
(CC0)."""
