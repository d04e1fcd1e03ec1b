"""The desk: its page (page/), who serves that (`http`) and with what (`parts`), what it may be asked (`words`), and what answers: files
(`files`, `drafts`) and the repository's pages (`pages`). The board and the words' meanings the page's own engine tells (web/desk)."""
