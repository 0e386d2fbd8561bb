# Makes each function of exports.txt wrong, most of them for few operands: `run --break` must see each.
/fn ours_next_up/,/^}/ s/floats::next_up(x)/if x == 0.0 { x } else { floats::next_up(x) }/
/fn ours_next_down/,/^}/ s/floats::next_down(x)/if x - x == 0.0 { floats::next_down(x) } else { x }/
/fn ours_is_nan/,/^}/ s/floats::is_nan(x)/x != x \&\& x == x/
/fn ours_min/,/^}/ s/floats::min(x, y)/if y < x { y } else { x }/
/fn ours_max/,/^}/ s/floats::max(x, y)/if x < y { y } else { x }/
/fn ours_sqrt/,/^}/ s/math::root::sqrt(x)/if x < 1.0 { x * math::root::sqrt(1.0 \/ x) } else { math::root::sqrt(x) }/
/fn ours_zero/,/^}/ s/ZERO/ONE/
/fn ours_one/,/^}/ s/ONE/TWO/
/fn ours_two/,/^}/ s/TWO/ONE/
/fn ours_entire/,/^}/ s/Scalar::entire()/Scalar::entire().lower()/
/fn ours_from_f64/,/^}/ s/Scalar::from_f64(x)/Scalar::from_f64(x \/ 3.0 * 3.0)/
/fn ours_from_ratio/,/^}/ s/Scalar::from_ratio(num, den)/First::div(Scalar::from_f64(1.0), Scalar::from_f64(den as f64))/
/fn ours_to_f64/,/^}/ s/\.to_f64()/.lower().to_f64()/
/fn ours_width/,/^}/ s/\.width()/.upper()/
/fn ours_lower/,/^}/ s/\.lower()/.upper()/
/fn ours_upper/,/^}/ s/\.upper()/.lower()/
/fn ours_sharpen/,/^}/ s/\.sharpen()/.lower()/
/fn ours_add/,/^}/ s/First::add(/First::sub(/
/fn ours_sub/,/^}/ s/First::sub(/First::add(/
/fn ours_mul/,/^}/ s/First::mul(/First::add(/
/fn ours_times/,/^}/ s/First::times(/First::add(/
/fn ours_div/,/^}/ s/put_divided(First::div(\(.*\), \(Scalar {.*}\)), out)/put(First::mul(\1, \2.inverse()), out);\n    true/
/fn ours_over/,/^}/ s/\.over(.*, out)/.upper(), out)/
/fn ours_quotient/,/^}/ s/hi: bh/hi: bl/
/fn ours_difference/,/^}/ s/hi: bh/hi: bl/
/fn ours_join/,/^}/ s/r\.lo, hi: r\.hi/r.lo, hi: ah/
/fn ours_intersect/,/^}/ s/\.intersect(/.union(/
/fn ours_union/,/^}/ s/\.union(/.intersect(/
/fn ours_could_be_equal/,/^}/ s/\.could_be_equal(/.is_subset_of(/
/fn ours_definitely_greater/,/^}/ s/\.definitely_greater(/.definitely_less(/
/fn ours_definitely_less/,/^}/ s/\.definitely_less(/.definitely_greater(/
/fn ours_is_subset_of/,/^}/ s/\.is_subset_of(/.is_exactly(/
/fn ours_is_exactly/,/^}/ s/\.is_exactly(/.is_subset_of(/
/fn ours_interpolate/,/^}/ s/{ lo: cl, hi: ch }/{ lo: floats::max(cl, 0.0), hi: ch }/
# Revision 2: down for up, revision 1 for 2, and revision 2 for 1.
/fn ours_four_fifths/,/^}/ s/First/Second/
/fn second_four_fifths/,/^}/ s/Second/First/
/fn second_sum_down/,/^}/ s/sum_down(a, b)/sum_up(a, b)/
/fn second_sum_up/,/^}/ s/sum_up(a, b)/sum_down(a, b)/
/fn second_product_down/,/^}/ s/product_down(a, b)/product_up(a, b)/
/fn second_product_up/,/^}/ s/product_up(a, b)/product_down(a, b)/
/fn second_quotient_down/,/^}/ s/quotient_down(a, b)/quotient_up(a, b)/
/fn second_quotient_up/,/^}/ s/quotient_up(a, b)/quotient_down(a, b)/
/fn second_add/,/^}/ s/Second/First/
/fn second_sub/,/^}/ s/Second/First/
/fn second_mul/,/^}/ s/Second/First/
/fn second_times/,/^}/ s/Second/First/
/fn second_div/,/^}/ s/Second/First/
/fn second_interpolate/,/^}/ s/Second/First/
