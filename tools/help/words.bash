# Looks at a command's words by the table `commands`; the script `thriftd` sources this. Only the program decides
# whether words are a command. This says which words it will surely take, and of others what is wrong.

declare -gA kinds=() says=() uses=()
commands=()

# read_commands FILE: reads of the table the kinds of places and options, what is said of them and of statuses, and the
# commands' lines of use
read_commands() {
  local line key rest name
  mapfile -t table < "$1"
  for line in "${table[@]}"; do
    key=${line%% *} rest=${line#* }
    name=${rest%%[ :]*}
    case $key in
      place | option | status)
        says[$name]=${rest#*: }
        rest=${rest%%: *}
        kinds[$name]=${rest#"$name "}
        ;;
      command)
        commands+=("$name")
        uses[$name]=$rest
        ;;
    esac
  done
}

# read_use COMMAND: sets places, in their order; many, where the last one may stand more than once; options, in their
# order; takes, of each whether it has to be there; and shown, each with what its value is called
read_use() {
  local word words is_value=
  places=() many='' options=()
  declare -gA takes=() shown=()
  read -ra words <<< "${uses[$1]#"$1"}"
  for word in "${words[@]}"; do
    case $word in
      '<') return ;;
      ..) many=1 ;;
      '[--'*)
        word=${word#[}
        options+=("${word%]}")
        takes[${word%]}]=no
        shown[${word%]}]=${word%]}
        ;;
      --*)
        options+=("$word")
        takes[$word]=yes
        shown[$word]=$word
        is_value=1
        ;;
      *)
        if [ -n "$is_value" ] || [[ $word == *']' ]]; then
          shown[${options[-1]}]+=" ${word%]}"
          is_value=
        else
          places+=("$word")
        fi
        ;;
    esac
  done
}

# wrong FORMAT WORD..: notes what is wrong, where nothing was before
wrong() {
  # shellcheck disable=SC2059
  [ -n "$fault" ] || printf -v fault -- "$@"
}

# split_words WORD..: sets given, the words that stand in places, and values, those of options
split_words() {
  local word name
  given=()
  declare -gA values=()
  while [ $# -gt 0 ]; do
    word=$1 name=${1%%=*}
    shift
    if [[ $word != -* ]]; then
      given+=("$word")
    elif [ -z "${takes[$name]-}" ]; then
      wrong '%q is no option of %s%s' "$name" "$command" "$(nearest "$name" "${options[@]}")"
    elif [ -n "${values[$name]+there}" ]; then
      wrong '%s stands twice' "$name"
    elif [ "${kinds[$name]}" = flag ]; then
      values[$name]=
      [ "$word" = "$name" ] || wrong '%s takes no value' "$name"
    elif [ "$word" != "$name" ]; then
      values[$name]=${word#*=}
    elif [ $# -gt 0 ] && [[ $1 != -* ]]; then
      values[$name]=$1
      shift
    else
      wrong '%s lacks its value' "$name"
    fi
  done
}

# grouped NUMBER: sets number to it with a comma before every three digits
grouped() {
  number=$1
  while [[ $number =~ ^([0-9]+)([0-9]{3}.*)$ ]]; do
    number=${BASH_REMATCH[1]},${BASH_REMATCH[2]}
  done
}

# joined WORD..: sets text to the words, with `or` before the last one
joined() {
  text=$1
  while [ $# -gt 2 ]; do
    shift
    text+=", $1"
  done
  [ $# -lt 2 ] || text+=" or $2"
}

# kind_of NAME: sets text to what a place or an option may be, or to nothing where that isn't bounded
kind_of() {
  local kind number least
  read -ra kind <<< "${kinds[$1]}"
  text=
  case ${kind[0]} in
    one) joined "${kind[@]:1}" ;;
    number)
      grouped "${kind[1]}" && least=$number
      grouped "${kind[2]}" && text="$least to $number"
      ;;
    digits) text="at most ${kind[1]} digits" ;;
    pair) joined "${kind[@]:2}" ;;
  esac
}

kind_text() {
  local text
  kind_of "$1"
  printf '%s' "$text"
}

# unlike NAME FORM VALUE WORD..: notes that a value isn't what a place or an option is, and which word is like it
unlike() { wrong '%s is %s%s, not %q%s' "$1" "$2" "$(kind_text "$1")" "$3" "$(nearest "${@:3}")"; }

# look_at_value NAME VALUE: looks whether a value is of the kind of a place or an option
look_at_value() {
  local kind
  read -ra kind <<< "${kinds[$1]}"
  case ${kind[0]} in
    some) [ -n "$2" ] || wrong '%s is empty' "$1" ;;
    one) is_among "$2" "${kind[@]:1}" || unlike "$1" '' "$2" "${kind[@]:1}" ;;
    number) is_number "$2" "${kind[1]}" "${kind[2]}" || unlike "$1" 'a number from ' "$2" ;;
    digits) [[ $2 =~ ^[0-9]+$ && ${#2} -le ${kind[1]} ]] || unlike "$1" 'a number of ' "$2" ;;
    pair)
      if [[ $2 != ?*=?* ]]; then
        wrong '%q is no %s' "$2" "$1"
      elif ! is_among "${2#*=}" "${kind[@]:2}"; then
        wrong '%q: %s is %s%s' "$2" "${1#*=}" "$(kind_text "$1")" "$(nearest "${2#*=}" "${kind[@]:2}")"
      fi
      ;;
  esac
}

is_among() {
  local word
  for word in "${@:2}"; do
    [ "$1" != "$word" ] || return 0
  done
  return 1
}

is_number() { [[ $1 =~ ^[0-9]{1,10}$ ]] && ((10#$1 >= $2 && 10#$1 <= $3)); }

# look_at_places: looks at the words that stand in places
look_at_places() {
  local at=0 word place most
  for word in "${given[@]}"; do
    if [ $at -lt ${#places[@]} ]; then
      place=${places[at]}
    elif [ -z "$many" ]; then
      wrong '%q is a word too many' "$word"
      return
    fi
    look_at_value "$place" "$word"
    at=$((at + 1))
  done
  if [ $at -lt ${#places[@]} ]; then
    wrong '%s is missing' "${places[at]}"
  elif [ -n "$many" ]; then
    read -r _ most _ <<< "${kinds[$place]}"
    [ $((at - ${#places[@]} + 1)) -le "$most" ] || wrong 'there are more than %s of %s' "$most" "$place"
  fi
}

# look_at_options: looks at the values of options, and for those that have to be there
look_at_options() {
  local name frame
  for name in "${options[@]}"; do
    if [ -n "${values[$name]+there}" ]; then
      look_at_value "$name" "${values[$name]}"
    elif [ "${takes[$name]}" = yes ]; then
      wrong '%s is missing' "$name"
    fi
  done
  if [ -z "$fault" ] && [ -n "${values[--read-budget]-}" ]; then
    frame=${values[--max-frame]-${kinds[--max-frame]##* }}
    [ $((10#${values[--read-budget]})) -ge $((10#$frame)) ] ||
      wrong '--read-budget is less than --max-frame, which is %s' "$frame"
  fi
}

# find_tools FOLDER: sets tools to the names of what can be run in the folder
find_tools() {
  local path
  tools=()
  for path in "$1"/*; do
    [[ ${path##*/} == *.* ]] || [ ! -f "$path" ] || [ ! -x "$path" ] || tools+=("${path##*/}")
  done
}

# look_at_words WORD..: sets fault to what is wrong with the words, or to nothing where they are surely a command
look_at_words() {
  local LC_ALL=C
  fault='' command=$1
  if [ -z "${uses[${1:- }]-}" ]; then
    find_tools "$top/tools"
    wrong '%q is no command%s' "$1" "$(nearest "$1" "${commands[@]}" help version "${tools[@]}")"
    return
  fi
  read_use "$1"
  split_words "${@:2}"
  look_at_places
  look_at_options
  case $* in
    *[$'\x80'-$'\xff']*)
      printf '%s' "$*" | iconv -f UTF-8 -t UTF-8 > /dev/null 2>&1 || wrong 'a word is not in UTF-8'
      ;;
  esac
}

# nearest WORD NAME..: says which of the names the word is likely to stand for, if any
nearest() {
  local word=${1:0:24} name best='' least=$((${#1} < 4 ? 2 : 3)) steps
  for name in "${@:2}"; do
    distance "$word" "$name"
    [ $steps -ge $least ] || { least=$steps && best=$name; }
  done
  [ -z "$best" ] || printf ': did you mean %s?' "$best"
}

# distance ONE OTHER: sets steps, how many signs have to be put in, left out or changed to make the one the other
distance() {
  local before=() now i j least
  for ((j = 0; j <= ${#2}; j++)); do before[j]=$j; done
  for ((i = 1; i <= ${#1}; i++)); do
    now=("$i")
    for ((j = 1; j <= ${#2}; j++)); do
      least=${before[j - 1]}
      [ "${1:i-1:1}" = "${2:j-1:1}" ] || least=$((least + 1))
      [ "$least" -le "${before[j]}" ] || least=$((before[j] + 1))
      [ "$least" -le "${now[j - 1]}" ] || least=$((now[j - 1] + 1))
      now[j]=$least
    done
    before=("${now[@]}")
  done
  steps=${before[-1]}
}
