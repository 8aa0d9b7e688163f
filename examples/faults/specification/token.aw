role Desk
