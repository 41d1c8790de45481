-- The word of greeting in each language.
return {
   en = "Hello",
   es = "Hola",
   fr = "Bonjour",
   sv = "Hej",
}
