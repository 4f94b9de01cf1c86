"""What `tools/tour` is made of: the replay's report and its states are asked for (`command`, `lines`), and put into a page with the picture of
`tools/diagram` (`page`). On the page states are folded (`fold.js`), told in words (`sentences.js`) and shown (`panes.js`, `lanes.js`), and one goes
from event to event (`tour.js`). Nothing here knows the protocol: a page has what the program said."""
