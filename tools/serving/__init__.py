"""The language server `tools/lsp`: outside of what is proved, and told in docs/TOOLS.md."""
