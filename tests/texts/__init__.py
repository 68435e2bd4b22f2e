"""The words that the texts have to say alike (`users`, of the version `versions`), whether what they name is there (`names`),
held against the `sources`, and how long and wide they are (`layout`)."""
