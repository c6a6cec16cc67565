"""firmctl: the commands of users and operators."""
