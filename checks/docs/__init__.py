"""Pages, comments, scripts and commit messages: wording, links, numbers, and the commands that pages print."""
