"""A machine of the tests' own: a root of Debian, servers, users and their mail, and who follows the pages there."""
