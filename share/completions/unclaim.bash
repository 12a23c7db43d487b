# SPDX-License-Identifier: MIT OR Apache-2.0
# bash-completion claims `units` for GNU's program. Without that claim it loads the completions of the installed one.
complete -r units 2> /dev/null
