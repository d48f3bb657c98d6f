"""The command `bikhnoun`: one word for each thing that the proved programs and the tools around them do."""
