
	 // only
 /* trivia /* here */ */ 

