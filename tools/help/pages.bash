# Prints the help of the script `thriftd`, which sources this, of the table `commands` and of the heads of the tools.

# print_line NAME TEXT: prints a line of a page
print_line() { printf '  %-18s %s\n' "$1" "$2"; }

# described NAME: sets what to what is said of a place or an option, with its bounds
described() {
  local kind text number
  kind_of "$1"
  what=${says[$1]}
  read -ra kind <<< "${kinds[$1]}"
  case ${kind[0]} in
    pair) what+=": ${1#*=} is $text; 1 to ${kind[1]} of them" ;;
    *) [ -z "$text" ] || what="$text: $what" ;;
  esac
  if [ "${kind[0]}" = number ] && [ ${#kind[@]} -gt 3 ]; then
    grouped "${kind[3]}"
    what+="; $number without it"
  fi
}

# facts_of COMMAND: sets does, notes, examples, ended, statuses and more to what the table says of a command
facts_of() {
  local line is_here='' words
  does='' notes=() examples=() ended='' statuses=() more=''
  for line in "${table[@]}"; do
    case $line in
      "command $1 "*) is_here=1 ;;
      'command '*) is_here= ;;
      *) [ -n "$is_here" ] || continue ;;
    esac
    words=${line#  * }
    case $line in
      '  does '*) does=$words ;;
      '  note '*) notes+=("$words") ;;
      '  example '*) examples+=("$words") ;;
      '  ended '*) ended=$words ;;
      '  statuses '*) read -ra statuses <<< "$words" ;;
      '  page '*) more=$words ;;
    esac
  done
}

# set_places: sets me to how the script is called in examples, and shelf to where the documents are, in a clone or in
# the package
set_places() {
  me=./thriftd shelf=
  [ ! -e "$top/program" ] || me=thriftd shelf=${top%/lib/thriftd}/share/doc/thriftd/
}

# print_page COMMAND: prints the page of a command of the program
print_page() {
  local does notes examples ended statuses more name what me shelf
  set_places
  facts_of "$1"
  read_use "$1"
  printf 'thriftd %s\n\n%s\n' "${uses[$1]}" "$does"
  [ ${#notes[@]} -eq 0 ] || printf '%s\n' "${notes[@]}"
  printf '\nwords:\n'
  for name in "${places[@]}" "${options[@]}"; do
    described "$name"
    print_line "${shown[$name]-$name}" "$what"
  done
  printf '\nexample:\n'
  printf '  %s\n' "${examples[@]/#.\/thriftd/$me}"
  printf '\nstatuses:\n'
  print_line 0 "$ended"
  for name in "${statuses[@]}" 126 127; do
    print_line "$name" "${says[$name]}"
  done
  printf '\n%s says more.\n' "$shelf$more"
}

# tool_says FILE: sets what to the first sentence of the text that the tool begins with
tool_says() {
  local line
  what=
  while IFS= read -r line; do
    case $line in
      '#!'* | '') continue ;;
      '"""'*) line=${line#'"""'} ;;
      '# '*) line=${line#'# '} ;;
    esac
    line=${line%'"""'}
    line=${line%%: docs/*}
    line=${line%%. *}
    what=${line%[.:]}
    return
  done < "$1"
}

# print_overview FOLDER: prints what commands there are, and which tools in the folder
print_overview() {
  local name does notes examples ended statuses more tools what me shelf
  set_places
  for name in "${commands[@]}"; do
    facts_of "$name"
    printf 'thriftd %s\n    %s\n' "${uses[$name]}" "$does"
  done
  printf 'thriftd help [COMMAND], thriftd version\n'
  printf '    print this, or the page of a command or a tool, and the version\n'
  find_tools "$1"
  if [ ${#tools[@]} -gt 0 ]; then
    printf '\ntools, of which nothing is proved: thriftd NAME ..\n'
    for name in "${tools[@]}"; do
      tool_says "$1/$name"
      print_line "$name" "$what"
    done
  fi
  printf '\n%sREADME.md begins with examples; docs/PROFILE.md beside it has all words, formats and limits.\n' "$shelf"
}
