"""A bus of messages over an MQTT broker, and what passes on the other buses' lines as messages.

`topics` says which message is which event and which level, `discovery` what Home Assistant is told,
`broker` holds the connection, `house` says what passes on lines, `lines` are these, and `variables`
reads the status of the building. benches/broker tries it.
"""
