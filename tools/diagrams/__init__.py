"""What `tools/diagram` is made of: a report is read (`report`), told as lives of messages and lanes of nodes (`story`), laid out (`layout`,
`labels`) and drawn (`lanes`, `marks`, `arrows`, `legend`, `picture`). Nothing here knows the protocol: a picture has what the report says."""
