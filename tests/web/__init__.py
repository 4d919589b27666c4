"""The page of web/: what is packed for it, and its checks in Chromium."""
